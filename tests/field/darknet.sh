# A neural network library with a Makefile of its own. Its calls have no dependency files, but host words in quotes, and brackets.
archive ec536ae11853846aab96183d8ec18730a46cce71f7d935768d235029329f9e93 main/d/darknet/darknet_0.0.0+git20180914.61c9d02e.orig.tar.xz
edit src/activation_kernels.cu 's/return \.001f\*x;/return .002f*x;/'
build() {
    mkdir -p source/obj
    (cd source/src && printf 'obj/%s\n' *.cu) |
        make_objects source "$1" GPU=1 ARCH='-gencode arch=compute_75,code=sm_75 -gencode arch=compute_86,code=[sm_86,compute_86]'
}
