# A task scheduler. Automake's Makefiles build the kernels of its examples and tests.
archive 6b3bb9ec0d79f937882148b2da09ae6cb0ad4d1e83a104be45723dd70eba99c3 main/s/starpu/starpu_1.4.10+dfsg.orig.tar.gz
edit examples/basic_examples/block_cuda.cu 's/\*= multiplier;/*= 2 * multiplier;/'
configure() {
    mkdir -p build && cd build && ../source/configure --enable-cuda --disable-opencl --disable-mpi --disable-fortran --without-hwloc \
        --disable-hdf5 --disable-build-doc --disable-starpufft --with-cuda-dir="$toolkit" NVCC="$nvcc" NVCCFLAGS="$(gencode)"
}
build() {
    local part
    for part in examples tests; do
        (cd "source/$part" && find . -name '*.cu' -printf '%P\n') | make_objects "build/$part" "$1"
    done
}
