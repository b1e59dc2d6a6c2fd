# The library that include/geoarrow.h declares, as CMake's find_package takes it:
#
#   find_package(geoarrow_c 2 CONFIG REQUIRED)      # the shared library; with COMPONENTS static the static one
#   target_link_libraries(program geoarrow_c::geoarrow_c)
#
# It is found from where this file lies, so the folder in which it is installed may be moved.
get_filename_component(_geoarrow_c_folder "${CMAKE_CURRENT_LIST_DIR}/../../.." ABSOLUTE)
set(_geoarrow_c_kind SHARED)
set(_geoarrow_c_file libgeoarrow_c.so.2)
foreach(_geoarrow_c_asked IN LISTS geoarrow_c_FIND_COMPONENTS)
    if(_geoarrow_c_asked STREQUAL "static")
        set(_geoarrow_c_kind STATIC)
        set(_geoarrow_c_file libgeoarrow_c.a)
    elseif(NOT _geoarrow_c_asked STREQUAL "shared")
        set(geoarrow_c_FOUND FALSE)
        set(geoarrow_c_NOT_FOUND_MESSAGE "geoarrow_c has the components shared and static, and not ${_geoarrow_c_asked}")
        return()
    endif()
endforeach()
if(NOT TARGET geoarrow_c::geoarrow_c)
    add_library(geoarrow_c::geoarrow_c ${_geoarrow_c_kind} IMPORTED)
    set_target_properties(geoarrow_c::geoarrow_c PROPERTIES
        IMPORTED_LOCATION "${_geoarrow_c_folder}/lib/${_geoarrow_c_file}"
        INTERFACE_INCLUDE_DIRECTORIES "${_geoarrow_c_folder}/include")
    if(_geoarrow_c_kind STREQUAL "SHARED")
        set_target_properties(geoarrow_c::geoarrow_c PROPERTIES IMPORTED_SONAME ${_geoarrow_c_file})
    endif()
endif()
