// A property that is computed where it is read, and another that changes where it is written.
let log = [];
let room = {
    celsius: 20,
    get fahrenheit() { log.push("read"); return this.celsius * 9 / 5 + 32; },
    set fahrenheit(f) { log.push("write"); this.celsius = (f - 32) * 5 / 9; },
    ["no" + "te"]: "warm",
};
print(room.fahrenheit);
room.fahrenheit = 50;
print(room.celsius, room.note);

// A getter or a setter has the object that was asked as its `this`.
let cellar = Object.create(room);
cellar.celsius = 0;
print(cellar.fahrenheit);
cellar.fahrenheit = 41;
print(cellar.celsius, room.celsius);

// There are whole numbers alone: what `/` can't give exactly is a RangeError.
try {
    room.fahrenheit = 51;
} catch (e) {
    print(e instanceof RangeError, room.celsius);
}
print(log.join());

// Without a setter there is nothing to write to; and what isn't enumerable isn't listed.
Object.defineProperty(room, "kelvin", { get: () => room.celsius + 273 });
try {
    room.kelvin = 0;
} catch (e) {
    print("no setter:", e instanceof TypeError);
}
print(Object.keys(room).join());

desk.room = room;
