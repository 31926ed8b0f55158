#!/usr/bin/env bash
# Counts instructions. It makes worlds with many messages, subscriptions, objects and names, takes them up from a snapshot, and runs them. It also
# counts events, and a turn of a loop.
# usage: examples/measure.sh [PROGRAM], where PROGRAM is the built program. It needs valgrind, and takes some minutes. docs/PERFORMANCE.md has what it printed.
set -euo pipefail
top=$(cd "$(dirname "$(readlink -f "${BASH_SOURCE[0]}")")/.." && pwd)
croquet=$(readlink -f "${1:-$top/release/croquet-x86_64-linux}")
work=$(mktemp -d)
trap 'rm -rf "$work"' EXIT
cd "$work"

# Writes a program. Its Root does one thing N times, 500 times in each message and one message each millisecond. Then it does another thing once.
# The words are N, the one thing, the other thing, further methods of Root, and further classes.
program() {
    cat <<END
class Root {
  field next;
  init(o) {
    this.next = 0;
    this.future(1).make();
  }
  make() {
    let end = this.next + 500;
    if (end > $1) {
      end = $1;
    }
    while (this.next < end) {
      $2
      this.next = this.next + 1;
    }
    if (end < $1) {
      this.future(1).make();
    } else {
      $3
    }
  }
  m() {
  }
  h(v) {
  }
$4
}
$5
END
}

# N messages to come, which are due in another order than they were sent.
messages() {
    program "$1" 'this.future(1000000 + this.next * 7919 % 1000).m();' '' '' ''
}

# N subscriptions of one object to N events, of which a thousand are published.
topics() {
    program "$1" 'subscribe("s", text(this.next), "h");' 'this.future(1000000).tell();' '
  tell() {
    let next = 0;
    while (next < 1000) {
      publish("s", text(next), nil);
      next = next + 1;
    }
  }' ''
}

# N subscriptions to one event, four of each object. The event is published once.
handlers() {
    program $(($1 / 4)) 'create(One, nil);' 'this.future(1000000).tell();' '
  tell() {
    publish("s", "e", nil);
  }' 'class One {
  init(o) {
    subscribe("s", "e", "a");
    subscribe("s", "e", "b");
    subscribe("s", "e", "c");
    subscribe("s", "e", "d");
  }
  a(v) {
  }
  b(v) {
  }
  c(v) {
  }
  d(v) {
  }
}'
}

# N names of one object, which do not come in their order. A thousand of them are looked up.
names() {
    program "$1" 'beKnown(text(this.next * 7919 % 100003));' 'this.future(1000000).look();' '
  look() {
    let next = 0;
    while (next < 1000) {
      known(text(next));
      next = next + 1;
    }
  }' ''
}

# N objects, each of which sends itself one message.
objects() {
    program "$1" 'create(One, nil);' '' '' 'class One {
  field n;
  init(o) {
    this.n = 0;
    this.future(1000000 + random(1000)).step();
  }
  step() {
    this.n = this.n + 1;
  }
}'
}

# One message each millisecond. Each runs a thousand turns of a loop, of 13 steps of fuel each.
turns() {
    cat <<END
class Root {
  field n;
  init(o) {
    this.n = 0;
    this.future(1).run();
  }
  run() {
    let i = 0;
    while (i < 1000) {
      this.n = this.n + i % 7;
      i = i + 1;
    }
    this.future(1).run();
  }
}
END
}

# A script of 10,000 events that set the counter back.
events() {
    echo 'join 7 1'
    for number in $(seq 10000); do
        echo "send 7 1 $number $((number * 1000)) 00000007636f756e74657200000005726573657400"
    done
}

count() {
    valgrind --tool=callgrind --callgrind-out-file=/dev/null "$croquet" replay "$@" 2>&1 >/dev/null | sed -n 's/.*Collected : //p'
}

# Measures three replays: making a world up to just before one second, taking it up from a snapshot of that time, and taking it up and running it to the end.
measure() {
    local made taken ran
    "$1" "$2" >program
    "$croquet" replay program n log 999000 --snapshot snapshot >/dev/null
    made=$(count program n log 999000)
    taken=$(count program n log 999000 --from snapshot)
    ran=$(count program n log 2999000000 --from snapshot)
    echo "$1 $2: making $made, taking up $taken, taking up and running $ran"
}

printf 'join 7 1\n' >script
"$croquet" stamp script --log log >/dev/null
for kind in messages topics handlers objects names; do
    case $kind in
    messages | topics) sizes='1000 2000 4000 8000 16000' ;;
    handlers) sizes='1000 2000 4000 7500 15000' ;;
    objects) sizes='500 1000 2000 4000' ;;
    names) sizes='1000 2000 4000 8000 16000 32000' ;;
    esac
    for size in $sizes; do measure "$kind" "$size"; done
done
events >script
"$croquet" stamp script --log log >/dev/null
echo "the counter over 10000 events: $(count "$top/examples/counter.program" n log 10001000)"
printf 'join 7 1\n' >script
"$croquet" stamp script --log log >/dev/null
turns >program
short=$(count program n log 1000)
long=$(count program n log 51000)
echo "a turn of a loop: $(((long - short) / 50000))"
