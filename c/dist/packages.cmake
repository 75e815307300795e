# Debian packages, by `cpack -G DEB`, of what was configured with -DCMAKE_INSTALL_PREFIX=/usr: liblapd1, liblapd-dev, and with
# LAPD_SIMULATOR lapdsim. Who makes them stands in LAPD_MAINTAINER. Other archives by `cpack -G TGZ` and the like.
set(LAPD_MAINTAINER "Nobody <nobody@localhost>" CACHE STRING "Who makes packages: NAME <MAIL>")
set(CPACK_GENERATOR TGZ)
set(CPACK_PACKAGE_NAME lapd)
set(CPACK_PACKAGE_VENDOR Vithrynel)
set(CPACK_PACKAGE_CONTACT "${LAPD_MAINTAINER}")
set(CPACK_PACKAGE_DESCRIPTION_SUMMARY "ISDN data link layer (LAPD, ITU-T Q.921) for line cards")
set(CPACK_PACKAGE_VERSION "${PROJECT_VERSION}")
# What was not released yet comes before what is.
file(STRINGS lapd.h lapd_is_early REGEX "No version was released yet")
if(lapd_is_early)
    set(CPACK_PACKAGE_VERSION "${PROJECT_VERSION}~dev")
endif()
set(CPACK_STRIP_FILES ON)
set(CPACK_COMPONENTS_ALL runtime development)
if(LAPD_SIMULATOR)
    list(APPEND CPACK_COMPONENTS_ALL simulator)
endif()

# ---- Debian's ------------------------------------------------------------------------------------------------------------

set(lapd_runtime "liblapd${PROJECT_VERSION_MAJOR}")
set(CPACK_DEB_COMPONENT_INSTALL ON)
set(CPACK_DEBIAN_FILE_NAME DEB-DEFAULT)
set(CPACK_DEBIAN_PACKAGE_PRIORITY optional)
set(CPACK_DEBIAN_PACKAGE_CONTROL_STRICT_PERMISSION ON)
set(lapd_about "The D-channels of up to 64 lines on one card, on the network's side or\nthe user's, modulo 128, in fixed memory.\n")

set(CPACK_DEBIAN_RUNTIME_PACKAGE_NAME "${lapd_runtime}")
set(CPACK_DEBIAN_RUNTIME_PACKAGE_SECTION libs)
set(CPACK_DEBIAN_RUNTIME_PACKAGE_DEPENDS "libc6 (>= 2.17)")
set(CPACK_COMPONENT_RUNTIME_DESCRIPTION "${lapd_about}.\nThis package has the shared library.")

set(CPACK_DEBIAN_DEVELOPMENT_PACKAGE_NAME liblapd-dev)
set(CPACK_DEBIAN_DEVELOPMENT_PACKAGE_SECTION libdevel)
set(CPACK_DEBIAN_DEVELOPMENT_PACKAGE_DEPENDS "${lapd_runtime} (= ${CPACK_PACKAGE_VERSION})")
set(CPACK_COMPONENT_DEVELOPMENT_DESCRIPTION
    "${lapd_about}.\nThis package has the headers for C and C++, the static library, the module\nfor Python, and examples.")

set(CPACK_DEBIAN_SIMULATOR_PACKAGE_NAME lapdsim)
set(CPACK_DEBIAN_SIMULATOR_PACKAGE_SECTION comm)
set(CPACK_DEBIAN_SIMULATOR_PACKAGE_DEPENDS "libc6 (>= 2.17)")
set(CPACK_COMPONENT_SIMULATOR_DESCRIPTION
    "${lapd_about}.\nThis package has a simulator: it plays scripts of what happens at a card,\nand prints what that sends and tells.")

# Which package a program needs that was linked with the library, and that the linker is told of it.
set(lapd_debian "${CMAKE_CURRENT_BINARY_DIR}/debian")
file(WRITE "${lapd_debian}/shlibs" "liblapd ${PROJECT_VERSION_MAJOR} ${lapd_runtime} (>= ${CPACK_PACKAGE_VERSION})\n")
file(WRITE "${lapd_debian}/triggers" "activate-noawait ldconfig\n")
set(CPACK_DEBIAN_RUNTIME_PACKAGE_CONTROL_EXTRA "${lapd_debian}/shlibs;${lapd_debian}/triggers;${lapd_debian}/symbols")

string(TIMESTAMP lapd_now "%a, %d %b %Y %H:%M:%S +0000" UTC)
file(WRITE "${lapd_debian}/changelog" "\
lapd (${CPACK_PACKAGE_VERSION}) unstable; urgency=medium

  * Made by CPack.

 -- ${LAPD_MAINTAINER}  ${lapd_now}
")
file(WRITE "${lapd_debian}/README.Debian" "\
liblapd.a         the library, with its functions of memory
liblapd_card.a    without them: for a program that has its own (lapd_memory.h)
liblapd-static.a  liblapd.a, by a name by which a linker takes no shared library: pkg-config's lapd
")
# Debian's flags put tests into calls that write to memory whose size a compiler knows: the simulator has none.
file(WRITE "${lapd_debian}/lintian/lapdsim" "lapdsim: hardening-no-fortify-functions [usr/bin/lapdsim]\n")
# What builds an example is no documentation, though its name ends as a text's.
file(WRITE "${lapd_debian}/lintian/liblapd-dev"
    "liblapd-dev: package-contains-documentation-outside-usr-share-doc [usr/share/lapd/examples/board/CMakeLists.txt]\n")
install(FILES "${lapd_debian}/lintian/liblapd-dev" DESTINATION "${CMAKE_INSTALL_DATADIR}/lintian/overrides" COMPONENT development EXCLUDE_FROM_ALL)
if(LAPD_SIMULATOR)
    install(FILES "${lapd_debian}/lintian/lapdsim" DESTINATION "${CMAKE_INSTALL_DATADIR}/lintian/overrides" COMPONENT simulator EXCLUDE_FROM_ALL)
endif()
install(FILES "${lapd_debian}/README.Debian" DESTINATION "${CMAKE_INSTALL_DATADIR}/doc/liblapd-dev" COMPONENT development EXCLUDE_FROM_ALL)
foreach(it ${CPACK_COMPONENTS_ALL})
    string(TOUPPER ${it} upper)
    install(FILES copyright "${lapd_debian}/changelog" DESTINATION
        "${CMAKE_INSTALL_DATADIR}/doc/${CPACK_DEBIAN_${upper}_PACKAGE_NAME}" COMPONENT ${it} EXCLUDE_FROM_ALL)
endforeach()

# Debian has libraries below the folder of their processor, which CMake knows of this prefix alone.
file(WRITE "${lapd_debian}/prefix.cmake" "\
if(CPACK_GENERATOR STREQUAL \"DEB\" AND NOT \"${CMAKE_INSTALL_PREFIX}\" STREQUAL \"/usr\")
    message(FATAL_ERROR \"Debian's packages install below /usr: configure with -DCMAKE_INSTALL_PREFIX=/usr\")
endif()
")
set(CPACK_PROJECT_CONFIG_FILE "${lapd_debian}/prefix.cmake")

# Debian has manuals and changes compressed, no section in a library that says nothing to who uses it, and a list of the symbols of
# a shared one.
file(WRITE "${lapd_debian}/compress.cmake" "\
set(nm \"${CMAKE_NM}\")
set(strip \"${CMAKE_STRIP}\")
set(symbols \"${lapd_debian}/symbols\")
set(package \"liblapd.so.${PROJECT_VERSION_MAJOR} ${lapd_runtime} #MINVER#\\n* Build-Depends-Package: liblapd-dev\")
set(version \"${CPACK_PACKAGE_VERSION}\")
")
file(APPEND "${lapd_debian}/compress.cmake" [[
if(CPACK_GENERATOR STREQUAL "DEB")
    set(unneeded --remove-section=.comment --remove-section=.note)
    file(GLOB_RECURSE programs "${CPACK_TEMPORARY_DIRECTORY}/lapdsim" "${CPACK_TEMPORARY_DIRECTORY}/liblapd.so.*.*")
    file(GLOB_RECURSE archives "${CPACK_TEMPORARY_DIRECTORY}/liblapd*.a")
    foreach(it ${programs})
        execute_process(COMMAND "${strip}" ${unneeded} "${it}")
    endforeach()
    foreach(it ${archives})
        if(NOT IS_SYMLINK "${it}")
            execute_process(COMMAND "${strip}" --strip-debug --enable-deterministic-archives ${unneeded} "${it}")
        endif()
    endforeach()
    list(FILTER programs INCLUDE REGEX "/liblapd[^/]*$")
    foreach(it ${programs})
        execute_process(COMMAND "${nm}" -D --defined-only --format=posix "${it}" OUTPUT_VARIABLE names)
        string(REGEX REPLACE "(^|\n)([a-z_0-9]+)[^\n]*" "\\1 \\2@Base ${version}" names "${names}")
        file(WRITE "${symbols}" "${package}\n${names}")
    endforeach()
    file(GLOB_RECURSE pages "${CPACK_TEMPORARY_DIRECTORY}/lapd*.[135]" "${CPACK_TEMPORARY_DIRECTORY}/changelog")
    list(FILTER pages INCLUDE REGEX "/(man/man[135]|doc)/")
    foreach(it ${pages})
        execute_process(COMMAND gzip -9nf "${it}")
    endforeach()
endif()
]])
set(CPACK_PRE_BUILD_SCRIPTS "${lapd_debian}/compress.cmake")
include(CPack)
