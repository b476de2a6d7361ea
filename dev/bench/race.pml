/* examples/every/race.asmx for SPIN: root and child add to one counter, TIMES times each, by a load and a store, and the
   root shows the count at the end. A statement is an instruction. */
byte count, done;
byte seen[2], left[2];

proctype Child() {
again:
    seen[0] = count;
    seen[0] = seen[0] + 1;
    count = seen[0];
    left[0] = left[0] - 1;
    if :: left[0] != 0 -> goto again :: else fi;
    seen[0] = 1;
    done = seen[0];
    skip
}

proctype Root() {
again:
    seen[1] = count;
    seen[1] = seen[1] + 1;
    count = seen[1];
    left[1] = left[1] - 1;
    if :: left[1] != 0 -> goto again :: else fi;
wait:
    seen[1] = done;
    if :: seen[1] == 0 -> goto wait :: else fi;
    seen[1] = count;
    printf("out %d\n", seen[1]);
    skip
}

init { atomic { left[0] = TIMES; left[1] = TIMES; run Child(); run Root() } }
