# For find_package(sewarqo): the library of the release that this file is installed with, as the targets
#
#     sewarqo::sewarqo   the shared library
#     sewarqo::static    the archive, with the heap of the C library
#     sewarqo::core      the archive without a heap, for a program that has its own
#
# Each has the folder of the headers, for C and C++.
get_filename_component(sewarqo_LIB "${CMAKE_CURRENT_LIST_DIR}/../.." REALPATH)
get_filename_component(sewarqo_INCLUDE "${sewarqo_LIB}/../include" ABSOLUTE)

if(NOT TARGET sewarqo::sewarqo)
    add_library(sewarqo::sewarqo SHARED IMPORTED)
    set_target_properties(sewarqo::sewarqo PROPERTIES
        IMPORTED_LOCATION "${sewarqo_LIB}/libsewarqo.so"
        IMPORTED_SONAME libsewarqo.so.0
        INTERFACE_INCLUDE_DIRECTORIES "${sewarqo_INCLUDE}")
    add_library(sewarqo::static STATIC IMPORTED)
    set_target_properties(sewarqo::static PROPERTIES
        IMPORTED_LOCATION "${sewarqo_LIB}/libsewarqo.a"
        INTERFACE_INCLUDE_DIRECTORIES "${sewarqo_INCLUDE}")
    add_library(sewarqo::core STATIC IMPORTED)
    set_target_properties(sewarqo::core PROPERTIES
        IMPORTED_LOCATION "${sewarqo_LIB}/libsewarqo_core.a"
        INTERFACE_INCLUDE_DIRECTORIES "${sewarqo_INCLUDE}")
endif()
unset(sewarqo_LIB)
unset(sewarqo_INCLUDE)
