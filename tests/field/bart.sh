# Image reconstruction, with a Makefile of its own: it compiles each source, and then has nvcc -M read it once more.
archive 05eb050759436cb183d8c576a88967ad9d3a987270e68dcdb78663ba4d7ef1e0 main/b/bart/bart_1.0.00.orig.tar.gz
edit src/num/gpu_reduce.cu 's/atomicAdd(&(arg->x), val\.x);/atomicAdd(\&(arg->x), 2 * val.x);/'
build() { (cd source && find src -name '*.cu') | make_objects source "$1" CUDA=1 CUDA_BASE="$toolkit" GPUARCH_FLAGS="$(gencode)"; }
