# Molecular dynamics. CMake's old FindCUDA module writes a script for each source, which calls nvcc -M and then nvcc -c.
archive 083cc3c424bb93ffe86c12f952e3e5b4e6c9f6520de5338761f24b75e018c223 main/g/gromacs/gromacs_2022.5.orig.tar.gz
edit src/gromacs/mdlib/gpuforcereduction_impl_internal.cu 's/temp += rvecForceToAdd\[threadIndex\];/temp += temp + rvecForceToAdd[threadIndex];/'
settings -DGMX_GPU=CUDA -DGMX_CUDA_TARGET_SM='75;86' -DGMX_CUDA_TARGET_COMPUTE=86 -DGMX_FFT_LIBRARY=fftpack -DGMX_EXTERNAL_BLAS=OFF \
    -DGMX_HWLOC=OFF -DGMX_SIMD=None -DCMAKE_DISABLE_FIND_PACKAGE_MPI=ON
