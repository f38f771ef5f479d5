# Solvers of differential equations: libraries and examples with CUDA, whose host code has debug information.
archive 8ed409272af77e958d0ac02fd72199d8643063faf2aa61811e5c615d7db5cf8e main/s/sundials/sundials_7.1.1+dfsg1.orig.tar.xz
edit src/nvector/cuda/VectorKernels.cuh 's/Z\[i\] = a + X\[i\];/Z[i] = a + 2 * X[i];/'
settings -DCMAKE_CUDA_ARCHITECTURES='75;86' -DENABLE_CUDA=ON -DEXAMPLES_ENABLE_CUDA=ON -DEXAMPLES_ENABLE_CXX=ON
