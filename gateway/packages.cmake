# A Debian package of lapd-gateway, by `cpack -G DEB`, of what was configured with -DCMAKE_INSTALL_PREFIX=/usr. It has the program,
# its service with a user of its own, a configuration of which Debian keeps what was changed, manuals and examples. Who makes it
# stands in LAPD_MAINTAINER.
set(LAPD_MAINTAINER "Nobody <nobody@localhost>" CACHE STRING "Who makes packages: NAME <MAIL>")
set(CPACK_GENERATOR DEB)
set(CPACK_PACKAGE_NAME lapd-gateway)
set(CPACK_PACKAGE_VENDOR Vithrynel)
set(CPACK_PACKAGE_CONTACT "${LAPD_MAINTAINER}")
set(CPACK_PACKAGE_DESCRIPTION_SUMMARY "ISDN signalling gateway (LAPD to IUA over SCTP)")
set(CPACK_PACKAGE_DESCRIPTION "\
D-channels end here by LAPD (ITU-T Q.921). Call control is on this machine or
on others, and joins by IUA (RFC 4233) over SCTP or a Unix socket. Lines are
of mISDN, of DAHDI, or of programs that hand over frames at a socket.")
set(CPACK_PACKAGE_VERSION "${PROJECT_VERSION}")
# What was not released yet comes before what is.
file(STRINGS "${LAPD_DIST}/lapd.h" lapd_is_early REGEX "No version was released yet")
if(lapd_is_early)
    set(CPACK_PACKAGE_VERSION "${PROJECT_VERSION}~dev")
endif()
set(CPACK_STRIP_FILES ON)
set(CPACK_SET_DESTDIR ON)
set(CPACK_COMPONENTS_ALL gateway package)
set(CPACK_COMPONENTS_GROUPING ALL_COMPONENTS_IN_ONE)
set(CPACK_DEB_COMPONENT_INSTALL ON)
set(CPACK_DEBIAN_FILE_NAME DEB-DEFAULT)
set(CPACK_DEBIAN_PACKAGE_SECTION comm)
set(CPACK_DEBIAN_PACKAGE_PRIORITY optional)
set(CPACK_DEBIAN_PACKAGE_CONTROL_STRICT_PERMISSION ON)
set(CPACK_DEBIAN_PACKAGE_DEPENDS systemd)
find_program(LAPD_SHLIBDEPS dpkg-shlibdeps)
if(LAPD_SHLIBDEPS)
    set(CPACK_DEBIAN_PACKAGE_SHLIBDEPS ON)
else()
    string(APPEND CPACK_DEBIAN_PACKAGE_DEPENDS ", libc6 (>= 2.34), libinih1, libmicrohttpd12, libsctp1, libsystemd0")
endif()

set(lapd_package "${CMAKE_CURRENT_BINARY_DIR}/debian")
file(WRITE "${lapd_package}/conffiles" "/etc/lapd-gateway.conf\n")
set(CPACK_DEBIAN_PACKAGE_CONTROL_EXTRA "${lapd_package}/conffiles")
foreach(it postinst prerm postrm)
    list(APPEND CPACK_DEBIAN_PACKAGE_CONTROL_EXTRA "${CMAKE_CURRENT_SOURCE_DIR}/debian/${it}")
endforeach()
string(TIMESTAMP lapd_now "%a, %d %b %Y %H:%M:%S +0000" UTC)
file(WRITE "${lapd_package}/changelog" "\
lapd-gateway (${CPACK_PACKAGE_VERSION}) unstable; urgency=medium

  * Made by CPack.

 -- ${LAPD_MAINTAINER}  ${lapd_now}
")
install(FILES "${LAPD_DIST}/copyright" "${lapd_package}/changelog" DESTINATION "${CMAKE_INSTALL_DATADIR}/doc/lapd-gateway"
    COMPONENT package EXCLUDE_FROM_ALL)
install(FILES debian/lintian-overrides RENAME lapd-gateway DESTINATION "${CMAKE_INSTALL_DATADIR}/lintian/overrides"
    COMPONENT package EXCLUDE_FROM_ALL)

# Debian has manuals and changes compressed, and programs without their compiler's name.
file(WRITE "${lapd_package}/compress.cmake" [[
file(GLOB_RECURSE pages "${CPACK_TEMPORARY_DIRECTORY}/lapd-gateway*.[58]" "${CPACK_TEMPORARY_DIRECTORY}/changelog")
foreach(it ${pages})
    execute_process(COMMAND gzip -9nf "${it}")
endforeach()
file(GLOB_RECURSE programs "${CPACK_TEMPORARY_DIRECTORY}/lapd-gateway")
list(FILTER programs INCLUDE REGEX "/sbin/")
foreach(it ${programs})
    execute_process(COMMAND strip --strip-unneeded --remove-section=.comment "${it}")
endforeach()
]])
set(CPACK_PRE_BUILD_SCRIPTS "${lapd_package}/compress.cmake")
include(CPack)
