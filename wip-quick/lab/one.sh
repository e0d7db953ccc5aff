./drv 3 long $1 >/dev/null
