# Not tried. The address and the sum stand for those of a release.
vcpkg_check_linkage(ONLY_STATIC_LIBRARY)
vcpkg_download_distfile(ARCHIVE
    URLS "https://example.invalid/offset-allocator/archive/v${VERSION}.tar.gz"
    FILENAME "offset-allocator-proved-${VERSION}.tar.gz"
    SHA512 0
)
vcpkg_extract_source_archive(SOURCE_PATH ARCHIVE "${ARCHIVE}")

vcpkg_cmake_configure(SOURCE_PATH "${SOURCE_PATH}/rust/offset-allocator-c")
vcpkg_cmake_install()
vcpkg_cmake_config_fixup(PACKAGE_NAME OffsetAllocator CONFIG_PATH lib/cmake/OffsetAllocator)

# the static library alone, as the linkage says
file(GLOB shared
    "${CURRENT_PACKAGES_DIR}/lib/*.so*" "${CURRENT_PACKAGES_DIR}/debug/lib/*.so*"
    "${CURRENT_PACKAGES_DIR}/lib/*.dylib" "${CURRENT_PACKAGES_DIR}/debug/lib/*.dylib"
    "${CURRENT_PACKAGES_DIR}/lib/*.dll.lib" "${CURRENT_PACKAGES_DIR}/debug/lib/*.dll.lib"
    "${CURRENT_PACKAGES_DIR}/lib/pkgconfig/offset_allocator.pc"
    "${CURRENT_PACKAGES_DIR}/debug/lib/pkgconfig/offset_allocator.pc"
)
file(REMOVE ${shared})
file(REMOVE_RECURSE "${CURRENT_PACKAGES_DIR}/bin" "${CURRENT_PACKAGES_DIR}/debug/bin" "${CURRENT_PACKAGES_DIR}/debug/include")
vcpkg_fixup_pkgconfig()

vcpkg_install_copyright(FILE_LIST "${SOURCE_PATH}/LICENSE" "${SOURCE_PATH}/rust/offset-allocator-c/NOTICE")
