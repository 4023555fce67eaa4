# machine: how busy this machine is, and what it is, which every figure depends on
machine() {
    echo "load: $(cut -d ' ' -f 1-3 /proc/loadavg), $(nproc) processors," \
        "$(sed -n 's/^model name[^:]*: //p' /proc/cpuinfo | head -n 1)"
}
