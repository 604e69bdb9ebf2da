# Sets `name` to the program for this processor: noc_avx2, or noc, which runs on all. For sh and for bash.
# The flags of the first processor. Those below are what noc_avx2 is compiled for (x86-64-v3). Linux calls LZCNT abm.
name=noc_avx2 key='' flags=''
while [ "$key" != flags ] && read -r key colon flags; do :; done 2> /dev/null < /proc/cpuinfo
case " $flags " in *' lzcnt '*) flags="$flags abm" ;; esac
for flag in avx2 abm bmi1 bmi2 f16c fma movbe; do
    case " $flags " in *" $flag "*) ;; *) name=noc ;; esac
done
