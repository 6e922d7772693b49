# Firmware: no data, no symbol but memset, and the page's sizes and stack are those of the archive and of its module compiled for Arm; on
# Arm that build is run. The page was measured with the pinned kit: with another the numbers are printed, and are no fault of the page.
if [ "$(rt version)" = "$(cat .ci/kit)" ]; then how=check; else how=print; fi
rust/firmware.sh $how && rust/firmware.sh compare
