# Makes the targets data_encoding::data_encoding, the shared library, and data_encoding::static, the
# static one. The folders are found from that of this file, so that the library may be moved with
# it.
get_filename_component(data_encoding_folder "${CMAKE_CURRENT_LIST_DIR}" REALPATH)
set(data_encoding_libdir "${data_encoding_folder}")
set(data_encoding_includedir "${data_encoding_folder}")

if(NOT TARGET data_encoding::data_encoding)
  add_library(data_encoding::data_encoding SHARED IMPORTED)
  set_target_properties(data_encoding::data_encoding PROPERTIES
    IMPORTED_LOCATION "${data_encoding_libdir}/@SHARED@"
    IMPORTED_SONAME "@SHARED@"
    INTERFACE_INCLUDE_DIRECTORIES "${data_encoding_includedir}")
  add_library(data_encoding::static STATIC IMPORTED)
  set_target_properties(data_encoding::static PROPERTIES
    IMPORTED_LOCATION "${data_encoding_libdir}/libdata_encoding.a"
    INTERFACE_INCLUDE_DIRECTORIES "${data_encoding_includedir}")
endif()
