// What the left side made can be extended, also where it is used already.
desk.Animal.prototype.legs = 4;
print(desk.rex.legs, desk.rex.speak());

function Cat(name) {
    desk.Animal.call(this, name);
}
Cat.prototype = Object.create(desk.Animal.prototype);
Cat.prototype.speak = function () {
    return this.name + " keeps quiet";
};

let tom = new Cat("Tom");
print(tom.speak(), tom.legs);
print(tom instanceof desk.Animal, tom.constructor === desk.Animal);

// No object inherits from itself.
try {
    Object.setPrototypeOf(desk.Animal.prototype, tom);
} catch (e) {
    print("no circle:", e instanceof TypeError);
}
