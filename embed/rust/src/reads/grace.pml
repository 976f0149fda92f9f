/* How a thread that takes something out of the chains waits for readers: readers.rs and nodes.rs, as a model for Spin.

   Two readers of two rounds each, on a stripe each or both on one (ONE), read a node of one link, and the value in it. A writer has the
   node show another value, frees the old one once it has waited, takes the node out, waits, and frees it with its value. In place of the
   second reader there may be one who puts a value in place of the node's (PUT), waits once it is gone, and frees the one that was there.
   Whoever reads or frees what was freed is an error. The memory is that of x86, with a buffer of stores for each thread, or sequentially
   consistent (SC).

   Each of these mistakes leads to an error: NO_WAIT, the writer frees at once; NO_FENCE, its stores of links and values stay in its
   buffer while it looks at the stripes; NO_LOCKED, a reader's first store does. */
#define STRIPE(n) n
#define LINK 2
#define VALUE 3
#define PLACES 4
#define BUFFER 3
#define THREADS 3
#define NONE 255

byte memory[PLACES];
bool freed_node = false;
bool freed_value[3];

/* The stores that haven't reached the memory yet, the oldest first: of the writer, 0, and of two readers. */
typedef Buffer { byte place[BUFFER]; byte value[BUFFER]; byte count };
Buffer buffer[THREADS];

inline flush_oldest(t) {
    memory[buffer[t].place[0]] = buffer[t].value[0];
    i = 1;
    do
    :: i < buffer[t].count ->
        buffer[t].place[i - 1] = buffer[t].place[i];
        buffer[t].value[i - 1] = buffer[t].value[i];
        i++
    :: else -> break
    od;
    buffer[t].count--;
    i = 0
}

inline store(t, to, what) {
#ifdef SC
    memory[to] = what
#else
    atomic {
        buffer[t].count < BUFFER;
        buffer[t].place[buffer[t].count] = to;
        buffer[t].value[buffer[t].count] = what;
        buffer[t].count++
    }
#endif
}

inline load(t, from, result) {
    atomic {
        result = memory[from];
        i = 0;
        do
        :: i < buffer[t].count ->
            if
            :: buffer[t].place[i] == from -> result = buffer[t].value[i]
            :: else
            fi;
            i++
        :: else -> break
        od;
        i = 0
    }
}

/* Until the thread's own stores have reached the memory. */
inline fence(t) { buffer[t].count == 0 }

inline exchange(t, at, old, new, is_done) {
    fence(t);
    atomic {
        is_done = (memory[at] == old);
        if
        :: is_done -> memory[at] = new
        :: else
        fi
    }
}

inline store_in_order(t, to, what) {
    store(t, to, what);
#ifndef NO_FENCE
    fence(t)
#endif
}

/* What was there; the new value may stay in the buffer by mistake. */
inline swap(t, at, new, old) {
#ifdef NO_FENCE
    load(t, at, old);
    store(t, at, new)
#else
    fence(t);
    atomic {
        old = memory[at];
        memory[at] = new
    }
#endif
}

inline free_value(value) {
    if
    :: value != NONE ->
        assert(!freed_value[value]);
        freed_value[value] = true
    :: else
    fi
}

inline wait_for_readers(t) {
    s = 0;
    do
    :: s < 2 ->
#ifndef NO_WAIT
        load(t, STRIPE(s), turn);
        if
        :: turn % 2 == 1 ->
            do
            :: load(t, STRIPE(s), again);
                if
                :: again != turn -> break
                :: else
                fi
            od
        :: else
        fi;
#endif
        s++
    :: else -> break
    od
}

proctype Reader(byte t; byte stripe) {
    byte i, turn, link, value, round;
    bool is_done;
    do
    :: round < 2 ->
        load(t, stripe, turn);
        if
        :: turn % 2 == 0 ->
#ifdef NO_LOCKED
            store(t, stripe, turn + 1);
            is_done = true;
#else
            exchange(t, stripe, turn, turn + 1, is_done);
#endif
            if
            :: is_done ->
                load(t, LINK, link);
                if
                :: link != NONE ->
                    assert(!freed_node);
                    load(t, VALUE, value);
                    if
                    :: value != NONE -> assert(!freed_value[value])
                    :: else
                    fi
                :: else
                fi;
                store(t, stripe, turn + 2)
            :: else
            fi
        :: else
        fi;
        round++
    :: else -> break
    od
}

proctype Putter(byte t; byte stripe) {
    byte i, s, turn, again, link;
    byte value = NONE;
    bool is_done;
    load(t, stripe, turn);
    if
    :: turn % 2 == 0 ->
        exchange(t, stripe, turn, turn + 1, is_done);
        if
        :: is_done ->
            load(t, LINK, link);
            if
            :: link != NONE ->
                assert(!freed_node);
                load(t, VALUE, value);
                if
                :: value != NONE ->
                    exchange(t, VALUE, value, 2, is_done);
                    if
                    :: !is_done -> value = NONE
                    :: else
                    fi
                :: else
                fi
            :: else
            fi;
            store(t, stripe, turn + 2);
            wait_for_readers(t);
            free_value(value)
        :: else
        fi
    :: else
    fi
}

proctype Writer() {
    byte i, s, turn, again, value;
    swap(0, VALUE, 1, value);
    wait_for_readers(0);
    free_value(value);
    swap(0, VALUE, NONE, value);
    store_in_order(0, LINK, NONE);
    wait_for_readers(0);
    freed_node = true;
    free_value(value)
}

/* A thread's oldest store reaches the memory at any time. */
proctype Drain(byte t) {
    byte i;
end:
    do
    :: atomic { buffer[t].count > 0 -> flush_oldest(t) }
    od
}

init {
    atomic {
        memory[LINK] = 0;
        memory[VALUE] = 0;
        run Writer();
        run Reader(1, STRIPE(0));
#ifdef ONE
#define SECOND STRIPE(0)
#else
#define SECOND STRIPE(1)
#endif
#ifdef PUT
        run Putter(2, SECOND);
#else
        run Reader(2, SECOND);
#endif
        run Drain(0);
        run Drain(1);
        run Drain(2)
    }
}
