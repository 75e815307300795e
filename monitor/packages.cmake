# A Debian package, lapd-monitor, by `cpack -G DEB` of what was configured with -DCMAKE_INSTALL_PREFIX=/usr. Who makes it stands in
# LAPD_MAINTAINER. Other archives by `cpack -G TGZ` and the like.
set(LAPD_MAINTAINER "Nobody <nobody@localhost>" CACHE STRING "Who makes packages: NAME <MAIL>")
set(CPACK_GENERATOR TGZ)
set(CPACK_PACKAGE_NAME lapd-monitor)
set(CPACK_PACKAGE_VENDOR Vithrynel)
set(CPACK_PACKAGE_CONTACT "${LAPD_MAINTAINER}")
set(CPACK_PACKAGE_DESCRIPTION_SUMMARY "judge of both ends of ISDN data links (LAPD, ITU-T Q.921)")
set(CPACK_PACKAGE_VERSION "${PROJECT_VERSION}")
# What was not released yet comes before what is.
file(STRINGS "${LAPD_DIST}/lapd.h" lapd_is_early REGEX "No version was released yet")
if(lapd_is_early)
    set(CPACK_PACKAGE_VERSION "${PROJECT_VERSION}~dev")
endif()
set(CPACK_STRIP_FILES ON)
set(CPACK_COMPONENTS_ALL monitor)

set(CPACK_DEB_COMPONENT_INSTALL ON)
set(CPACK_DEBIAN_FILE_NAME DEB-DEFAULT)
set(CPACK_DEBIAN_PACKAGE_PRIORITY optional)
set(CPACK_DEBIAN_PACKAGE_CONTROL_STRICT_PERMISSION ON)
set(CPACK_DEBIAN_MONITOR_PACKAGE_NAME lapd-monitor)
set(CPACK_DEBIAN_MONITOR_PACKAGE_SECTION comm)
set(CPACK_DEBIAN_MONITOR_PACKAGE_DEPENDS "libc6 (>= 2.34), libgcc-s1 (>= 3.0), libstdc++6 (>= 11), libpcap0.8 (>= 1.5.1)")
set(CPACK_COMPONENT_MONITOR_DESCRIPTION
    "It hears both directions of D-channels, from a capture or live, and tells which\nend of a link sends a frame that the tables of Q.921 do not have, and which row\nwould have sent it but for what.")

set(monitor_debian "${CMAKE_CURRENT_BINARY_DIR}/debian")
string(TIMESTAMP monitor_now "%a, %d %b %Y %H:%M:%S +0000" UTC)
file(WRITE "${monitor_debian}/changelog" "\
lapd-monitor (${CPACK_PACKAGE_VERSION}) unstable; urgency=medium

  * Made by CPack.

 -- ${LAPD_MAINTAINER}  ${monitor_now}
")
install(FILES "${LAPD_DIST}/copyright" "${monitor_debian}/changelog" DESTINATION "${CMAKE_INSTALL_DATADIR}/doc/lapd-monitor"
    COMPONENT monitor)

# Debian has manuals and changes compressed.
file(WRITE "${monitor_debian}/compress.cmake" [[
if(CPACK_GENERATOR STREQUAL "DEB")
    file(GLOB_RECURSE pages "${CPACK_TEMPORARY_DIRECTORY}/lapd-monitor.1" "${CPACK_TEMPORARY_DIRECTORY}/changelog")
    list(FILTER pages INCLUDE REGEX "/(man/man1|doc)/")
    foreach(it ${pages})
        execute_process(COMMAND gzip -9nf "${it}")
    endforeach()
endif()
]])
set(CPACK_PRE_BUILD_SCRIPTS "${monitor_debian}/compress.cmake")
include(CPack)
