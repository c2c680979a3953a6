print(desk.twiceAndSeven(5));

// Each call of `counter` makes one more `count`.
let mine = desk.counter(100);
print(mine.next(), mine.next(), desk.counter(100).next());

// A name is there from the beginning of its block, but it has no value before its `let` is reached.
let early = () => late;
try {
    early();
} catch (e) {
    print(e instanceof ReferenceError);
}
let late = "given";
print(early());
