# find_package(zigrunk) gives the target zigrunk::zigrunk, the shared library, and zigrunk::static, the archive, as far as each is installed.
get_filename_component(_zigrunk_prefix "${CMAKE_CURRENT_LIST_DIR}/../../.." ABSOLUTE)
foreach(_zigrunk_kind "zigrunk SHARED libzigrunk.so.2" "static STATIC libzigrunk.a")
  separate_arguments(_zigrunk_kind)
  list(GET _zigrunk_kind 0 _zigrunk_name)
  list(GET _zigrunk_kind 1 _zigrunk_type)
  list(GET _zigrunk_kind 2 _zigrunk_file)
  set(_zigrunk_file "${_zigrunk_prefix}/lib/${_zigrunk_file}")
  if(EXISTS "${_zigrunk_file}" AND NOT TARGET zigrunk::${_zigrunk_name})
    add_library(zigrunk::${_zigrunk_name} ${_zigrunk_type} IMPORTED)
    set_target_properties(zigrunk::${_zigrunk_name} PROPERTIES IMPORTED_LOCATION "${_zigrunk_file}"
      INTERFACE_INCLUDE_DIRECTORIES "${_zigrunk_prefix}/include")
  endif()
endforeach()
