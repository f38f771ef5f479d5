# Collective communication, with NCCL.
archive 43d930375720059ac67b1619c7d020d5d2cee79757caf4e75a1bfedb8eeb2b42 main/g/gloo/gloo_0.0~git20250912.d97133a.orig.tar.xz
edit gloo/cuda_private.cu 's/((i \* stride) + val)/((i * stride) + 2 * val)/'
settings -DCMAKE_CUDA_ARCHITECTURES='75;86' -DUSE_CUDA=ON -DGLOO_USE_CUDA_TOOLKIT=ON -DUSE_NCCL=ON \
    -DNCCL_INCLUDE_DIR="$toolkit/include" -DNCCL_LIBRARY="$toolkit/lib64/libnccl.so"
