# find_package(calzundi) and target_link_libraries(NAME calzundi::calzundi): the static library with its header.
get_filename_component(_calzundi_root "${CMAKE_CURRENT_LIST_DIR}/../../.." ABSOLUTE)
if(NOT TARGET calzundi::calzundi)
  add_library(calzundi::calzundi STATIC IMPORTED)
  set_target_properties(calzundi::calzundi PROPERTIES
    IMPORTED_LOCATION "${_calzundi_root}/lib/libcalzundi.a"
    IMPORTED_LINK_INTERFACE_LANGUAGES "C"
    INTERFACE_INCLUDE_DIRECTORIES "${_calzundi_root}/include")
endif()
set(calzundi_FOUND TRUE)
