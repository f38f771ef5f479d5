# A solver of least squares problems. Its CUDA sources end in .cu.cc. Its CMakeLists.txt asks for architectures that nvcc 13.0 lacks.
archive fb22a61518dadb2cdfdbc698fbc9620d6d1e5e1b68a93b983086b668e39f395a main/c/ceres-solver/ceres-solver_2.2.0+dfsg.orig.tar.xz
archive 1a167bb381acb90c1d8450a8f3e66a09d216dbc64b33ac8a082a0912513ef939 main/e/eigen3/libeigen3-dev_3.4.0-4_all.deb
edit internal/ceres/cuda_kernels_vector_ops.cu.cc 's/T(0\.0);/T(1.0);/'
patch CMakeLists.txt 's/"50;60;70;80"/"75;86"/'
settings -DMINIGLOG=ON -DGFLAGS=OFF -DSUITESPARSE=OFF -DLAPACK=OFF -DBUILD_TESTING=OFF -DBUILD_EXAMPLES=OFF
