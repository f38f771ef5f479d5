# Molecular dynamics. FindCUDA has nvcc make a fatbin of each kernel's source, which a host program carries as an array.
archive 65146c615ad24d8b8bc64f4e05e86226a7f1fdb45c0b5ea9416562b9f3863082 main/l/lammps/lammps_20220106.git7586adbb6a+ds1.orig.tar.xz
within cmake
patch cmake/Modules/Packages/GPU.cmake "s/\"-arch=\${GPU_ARCH}\"/\"$(gencode)\"/"
edit lib/gpu/lal_atom.cu 's/xt\.x=x\[i\];/xt.x=2*x[i];/'
settings -DPKG_GPU=ON -DGPU_API=cuda -DBUILD_MPI=OFF -DBUILD_OMP=OFF -DWITH_JPEG=OFF -DWITH_PNG=OFF -DWITH_GZIP=OFF -DWITH_FFMPEG=OFF \
    -DCMAKE_DISABLE_FIND_PACKAGE_MPI=ON -DCUDA_CUDA_LIBRARY="$toolkit/lib64/libcudart.so"
