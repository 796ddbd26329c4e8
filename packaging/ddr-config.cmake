# find_package(ddr) gives the target ddr::ddr: the library for C, with its headers.
get_filename_component(ddr_prefix "${CMAKE_CURRENT_LIST_DIR}/../../.." ABSOLUTE)
if(NOT TARGET ddr::ddr)
  add_library(ddr::ddr STATIC IMPORTED)
  set_target_properties(ddr::ddr PROPERTIES
    IMPORTED_LOCATION "${ddr_prefix}/lib/libddr.a"
    INTERFACE_INCLUDE_DIRECTORIES "${ddr_prefix}/include")
endif()
