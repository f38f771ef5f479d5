# Search of similar vectors: heavy templates, and fatbins that are compressed. The libraries' templates take hours and are left out. CUDA 13's
# Thrust needs C++17.
archive 3e4fac26d8c9e9008ecea4ae5fc414c658998fce4ba75835058b1a71d3516002 main/f/faiss/faiss_1.7.3.orig.tar.gz
only '/faiss\.dir/gpu/(utils|impl)/(DeviceUtils|FlatIndex|IVFUtils|IVFAppend|IndexUtils|VectorResidual|L2Norm|BinaryFlatIndex)\.cu\.o$'
patch CMakeLists.txt 's/STANDARD 11/STANDARD 17/'
edit faiss/gpu/impl/L2Norm.cu 's/sqrtf(ConvertTo<float>::to(rowNorm/sqrtf(1 + ConvertTo<float>::to(rowNorm/'
settings -DCMAKE_CUDA_ARCHITECTURES='75;86' -DFAISS_ENABLE_GPU=ON -DFAISS_ENABLE_PYTHON=OFF -DBUILD_TESTING=OFF
