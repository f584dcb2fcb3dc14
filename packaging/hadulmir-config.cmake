# find_package(hadulmir) gives the library hadulmir::hadulmir, wherever the installed folder stands.
get_filename_component(hadulmir_prefix "${CMAKE_CURRENT_LIST_DIR}/../../.." ABSOLUTE)
if(NOT TARGET hadulmir::hadulmir)
  add_library(hadulmir::hadulmir STATIC IMPORTED)
  set_target_properties(hadulmir::hadulmir PROPERTIES
    IMPORTED_LOCATION "${hadulmir_prefix}/lib/libhadulmir.a"
    INTERFACE_INCLUDE_DIRECTORIES "${hadulmir_prefix}/include")
endif()
