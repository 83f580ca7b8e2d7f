# Gives the target vahepito::vahepito: headers and archives of the folder in which this file lies, wherever that is. The
# target vahepito::strict has the library with no plain store in its place, as it was proved and built, and
# vahepito::shared the shared library. A shared object in which an archive is linked exports none of its functions.
if(NOT CMAKE_SYSTEM_NAME STREQUAL "Linux" OR NOT CMAKE_SYSTEM_PROCESSOR MATCHES "^(@PROCESSORS@)$"
        OR NOT CMAKE_SIZEOF_VOID_P EQUAL 8)
  set(vahepito_FOUND FALSE)
  set(vahepito_NOT_FOUND_MESSAGE "its archives are for Linux on the processor @PROCESSORS@ with 64 bits")
  return()
endif()

include(CMakeFindDependencyMacro)
find_dependency(Threads)

if(NOT TARGET vahepito::vahepito)
  get_filename_component(vahepito_lib "${CMAKE_CURRENT_LIST_DIR}/../.." ABSOLUTE)
  get_filename_component(vahepito_include "${vahepito_lib}/@UP@/include" ABSOLUTE)
  add_library(vahepito::heap STATIC IMPORTED)
  set_target_properties(vahepito::heap PROPERTIES
    IMPORTED_LINK_INTERFACE_LANGUAGES C
    IMPORTED_LOCATION "${vahepito_lib}/libvahepito_heap.a")
  add_library(vahepito::default_calls STATIC IMPORTED)
  add_library(vahepito::strict_calls STATIC IMPORTED)
  set_target_properties(vahepito::default_calls PROPERTIES IMPORTED_LOCATION "${vahepito_lib}/libvahepito.a")
  set_target_properties(vahepito::strict_calls PROPERTIES IMPORTED_LOCATION "${vahepito_lib}/libvahepito_strict.a")
  set_target_properties(vahepito::default_calls vahepito::strict_calls PROPERTIES
    IMPORTED_LINK_INTERFACE_LANGUAGES C
    INTERFACE_LINK_LIBRARIES vahepito::heap)
  # The queue, over either of them.
  add_library(vahepito::vahepito STATIC IMPORTED)
  add_library(vahepito::strict STATIC IMPORTED)
  set_target_properties(vahepito::vahepito PROPERTIES
    INTERFACE_LINK_LIBRARIES "vahepito::default_calls;Threads::Threads")
  set_target_properties(vahepito::strict PROPERTIES INTERFACE_LINK_LIBRARIES "vahepito::strict_calls;Threads::Threads")
  set_target_properties(vahepito::vahepito vahepito::strict PROPERTIES
    IMPORTED_LINK_INTERFACE_LANGUAGES C
    IMPORTED_LOCATION "${vahepito_lib}/libvahepito_queue.a"
    INTERFACE_INCLUDE_DIRECTORIES "${vahepito_include}"
    INTERFACE_LINK_OPTIONS
      "LINKER:--exclude-libs,libvahepito_queue.a:libvahepito.a:libvahepito_strict.a:libvahepito_heap.a")
  add_library(vahepito::shared SHARED IMPORTED)
  set_target_properties(vahepito::shared PROPERTIES
    IMPORTED_LOCATION "${vahepito_lib}/@SONAME@"
    IMPORTED_SONAME @SONAME@
    INTERFACE_INCLUDE_DIRECTORIES "${vahepito_include}"
    INTERFACE_LINK_LIBRARIES Threads::Threads)
endif()
