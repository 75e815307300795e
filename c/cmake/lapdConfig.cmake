# LAPD for line cards (ITU-T Q.921), as tools/install leaves it: find_package(lapd) has these targets.
#
#     lapd::lapd      the card and the clock, with memory by malloc
#     lapd::shared    the same as a shared library
#     lapd::card      without functions of memory, for a program that has its own (lapd_memory.h)
#
# A program in a debugging build is compiled with LAPD_CHECKED.
get_filename_component(lapd_PREFIX "${CMAKE_CURRENT_LIST_DIR}/../../.." ABSOLUTE)

if(NOT TARGET lapd::card)
  add_library(lapd::card STATIC IMPORTED)
  set_target_properties(lapd::card PROPERTIES
    IMPORTED_LOCATION "${lapd_PREFIX}/lib/liblapd.a"
    IMPORTED_LINK_INTERFACE_LANGUAGES C
    INTERFACE_COMPILE_DEFINITIONS "$<$<CONFIG:Debug>:LAPD_CHECKED>"
    INTERFACE_INCLUDE_DIRECTORIES "${lapd_PREFIX}/include")
endif()

# An installation for another processor, made without a compiler for it, has only the first.
if(NOT TARGET lapd::lapd AND EXISTS "${lapd_PREFIX}/lib/liblapd_malloc.a")
  add_library(lapd::lapd INTERFACE IMPORTED)
  set_target_properties(lapd::lapd PROPERTIES
    INTERFACE_LINK_LIBRARIES "lapd::card;${lapd_PREFIX}/lib/liblapd_malloc.a")
endif()

if(NOT TARGET lapd::shared AND EXISTS "${lapd_PREFIX}/lib/liblapd.so.1")
  add_library(lapd::shared SHARED IMPORTED)
  set_target_properties(lapd::shared PROPERTIES
    IMPORTED_LOCATION "${lapd_PREFIX}/lib/liblapd.so.1"
    IMPORTED_SONAME liblapd.so.1
    INTERFACE_COMPILE_DEFINITIONS "$<$<CONFIG:Debug>:LAPD_CHECKED>"
    INTERFACE_INCLUDE_DIRECTORIES "${lapd_PREFIX}/include")
endif()
