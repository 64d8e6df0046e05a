# find_package(lakhdzeva 3) gives the targets lakhdzeva::lakhdzeva, which is the shared library, and lakhdzeva::archive. The files are found from
# here, so the folder that has lib/ and include/ can be moved.
get_filename_component(lakhdzeva_LIBRARY_DIR "${CMAKE_CURRENT_LIST_DIR}/../.." ABSOLUTE)
find_path(lakhdzeva_INCLUDE_DIR lakhdzeva.h HINTS "${lakhdzeva_LIBRARY_DIR}/../include" "${lakhdzeva_LIBRARY_DIR}/../../include" NO_DEFAULT_PATH)
mark_as_advanced(lakhdzeva_INCLUDE_DIR)

if(NOT TARGET lakhdzeva::lakhdzeva)
    add_library(lakhdzeva::lakhdzeva SHARED IMPORTED)
    set_target_properties(lakhdzeva::lakhdzeva PROPERTIES
        IMPORTED_LOCATION "${lakhdzeva_LIBRARY_DIR}/liblakhdzeva.so.3"
        IMPORTED_SONAME liblakhdzeva.so.3
        INTERFACE_INCLUDE_DIRECTORIES "${lakhdzeva_INCLUDE_DIR}")
    add_library(lakhdzeva::archive STATIC IMPORTED)
    set_target_properties(lakhdzeva::archive PROPERTIES
        IMPORTED_LOCATION "${lakhdzeva_LIBRARY_DIR}/liblakhdzeva.a"
        INTERFACE_INCLUDE_DIRECTORIES "${lakhdzeva_INCLUDE_DIR}")
endif()
