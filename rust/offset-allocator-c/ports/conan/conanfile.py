"""Not tried. The address and the sum stand for those of a release."""
from pathlib import Path

from conan import ConanFile
from conan.tools.cmake import CMake, CMakeToolchain, cmake_layout
from conan.tools.files import copy, get

required_conan_version = ">=2.0"


class OffsetAllocatorProved(ConanFile):
    name = "offset-allocator-proved"
    version = "0.4.0"
    description = "An allocator of ranges in one contiguous space, for C and C++, printed from proved sources"
    license = "MIT"
    url = homepage = "https://example.invalid/offset-allocator"
    topics = ("allocator", "gpu", "suballocation")
    package_type = "static-library"
    settings = "os", "arch", "compiler", "build_type"

    def configure(self):
        # the interface is C; the C++ class is in its header
        self.settings.rm_safe("compiler.cppstd")
        self.settings.rm_safe("compiler.libcxx")

    def layout(self):
        cmake_layout(self, src_folder="src")

    def source(self):
        get(self, f"{self.homepage}/archive/v{self.version}.tar.gz", sha256="0" * 64, strip_root=True)

    def generate(self):
        CMakeToolchain(self).generate()

    def build(self):
        cmake = CMake(self)
        cmake.configure(build_script_folder="rust/offset-allocator-c")
        cmake.build()

    def package(self):
        CMake(self).install()
        copy(self, "LICENSE", self.source_folder, str(Path(self.package_folder) / "licenses"))
        copy(self, "NOTICE", str(Path(self.source_folder) / "rust/offset-allocator-c"), str(Path(self.package_folder) / "licenses"))
        for library in Path(self.package_folder).glob("lib/*"):
            if ".so" in library.name or library.suffix == ".dylib" or library.name.endswith(".dll.lib"):
                library.unlink()

    def package_info(self):
        self.cpp_info.libs = ["offset_allocator_c"]
        self.cpp_info.set_property("cmake_file_name", "OffsetAllocator")
        self.cpp_info.set_property("cmake_target_name", "OffsetAllocator::OffsetAllocator")
        self.cpp_info.set_property("pkg_config_name", "offset_allocator_static")
        if self.settings.os in ["Linux", "FreeBSD"]:
            self.cpp_info.system_libs = ["pthread", "dl", "m"]
        elif self.settings.os == "Windows":
            self.cpp_info.system_libs = ["kernel32", "ntdll", "userenv", "ws2_32", "dbghelp"]
