# The Bitronix Transaction Manager, for the benchmarks that stand beside it.

jars=/usr/share/java
classes=$jars/btm.jar:$jars/slf4j-api.jar:$jars/slf4j-nop.jar:$jars/geronimo-jta-1.2-spec.jar:$jars/geronimo-jms_1.1_spec.jar

# Compiles its program if all is there that it needs.
if has "a Java development kit" default-jdk command -v javac &&
    has "$jars/btm.jar" libbtm-java test -e "$jars/btm.jar" &&
    has "$jars/geronimo-jta-1.2-spec.jar" libgeronimo-jta-1.2-spec-java test -e "$jars/geronimo-jta-1.2-spec.jar" &&
    has "$jars/geronimo-jms_1.1_spec.jar" libgeronimo-jms-1.1-spec-java test -e "$jars/geronimo-jms_1.1_spec.jar" &&
    has "$jars/slf4j-nop.jar" libslf4j-java test -e "$jars/slf4j-nop.jar"; then
    javac -cp "$classes" -d "$work" bench/Bitronix.java
    sides=2
fi

# bitronix JOURNAL TRANSACTIONS THREADS..: its figures at so many threads each time, if it is there.
bitronix() {
    [ "$sides" = 2 ] || return 0
    journal=$1
    transactions=$2
    shift 2
    for threads; do
        mkdir "$work/journal"
        java -cp "$classes:$work" Bitronix "$journal" "$threads" "$transactions" "$work/journal" > "$work/printed"
        rm -r "$work/journal"
        awk -v threads="$threads" '$1 == "warm" { warm = $2 } $1 == "cold" { cold = $2 }
            END { print "threads: " threads "|Bitronix, warm|" warm; print "threads: " threads "|Bitronix, cold|" cold }' \
            "$work/printed"
    done
}
