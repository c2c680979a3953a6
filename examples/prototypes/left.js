// A constructor, and one that goes on from it.
function Animal(name) {
    this.name = name;
}
Animal.prototype.speak = function () {
    return this.name + " makes a sound";
};

function Dog(name) {
    Animal.call(this, name);
}
Object.setPrototypeOf(Dog.prototype, Animal.prototype);
Dog.prototype.speak = function () {
    return Animal.prototype.speak.call(this) + ", and it is woof";
};

let rex = new Dog("Rex");
print(rex.speak());
print(rex instanceof Dog, rex instanceof Animal, rex.constructor === Dog);
print(Object.keys(rex).join(), rex.hasOwnProperty("speak"), "speak" in rex);

// Objects that inherit without a constructor.
let base = {
    greeting: "hello",
    greet() { return this.greeting + ", " + this.name; },
};
let friend = Object.create(base);
friend.name = "Ann";
friend.greeting = "hi";
print(friend.greet() + "; " + base.greeting);
delete friend.greeting;
print(friend.greet());

desk.Animal = Animal;
desk.rex = rex;
