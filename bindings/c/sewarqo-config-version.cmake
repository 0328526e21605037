# Which versions find_package(sewarqo ..) takes: up to that of the header here, and with its first two numbers.
get_filename_component(sewarqo_LIB "${CMAKE_CURRENT_LIST_DIR}/../.." REALPATH)
file(STRINGS "${sewarqo_LIB}/../include/sewarqo.h" sewarqo_LINE REGEX "define SEWARQO_VERSION \"")
string(REGEX REPLACE ".*\"(.*)\".*" "\\1" PACKAGE_VERSION "${sewarqo_LINE}")
string(REGEX MATCH "^[0-9]+\\.[0-9]+" sewarqo_LINE "${PACKAGE_VERSION}")

if(CMAKE_SIZEOF_VOID_P AND NOT CMAKE_SIZEOF_VOID_P EQUAL 8)
    set(PACKAGE_VERSION_UNSUITABLE TRUE)
elseif(PACKAGE_FIND_VERSION VERSION_EQUAL PACKAGE_VERSION)
    set(PACKAGE_VERSION_EXACT TRUE)
    set(PACKAGE_VERSION_COMPATIBLE TRUE)
elseif(PACKAGE_FIND_VERSION VERSION_LESS PACKAGE_VERSION AND
       "${PACKAGE_FIND_VERSION_MAJOR}.${PACKAGE_FIND_VERSION_MINOR}" VERSION_EQUAL sewarqo_LINE)
    set(PACKAGE_VERSION_COMPATIBLE TRUE)
endif()
unset(sewarqo_LIB)
unset(sewarqo_LINE)
