// A function keeps the names that stood around it where it was made.
function counter(from) {
    let count = from;
    return {
        next: () => { count += 1; return count; },
        back: () => { count -= 1; return count; },
    };
}

let hall = counter(10);
let door = counter(0);
hall.next();
hall.next();
door.back();
print(hall.next(), door.next());

// Each turn of a `for` with `let` has names of its own.
let squares = [];
for (let i = 1; i <= 3; i++) squares.push(() => i * i);
print(squares.map(f => f()).join(" "));

// Functions that make functions.
let compose = (f, g) => x => f(g(x));
let add = a => b => a + b;

desk.counter = counter;
desk.twiceAndSeven = compose(add(7), x => x * 2);
