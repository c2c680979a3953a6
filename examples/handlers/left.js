// The right side registers handlers with the left side, which calls them in a later turn. With `--trace` each method
// that one side performs on an object of the other has its line.
let handlers = [];
desk.register = (f) => { handlers.push(f); };
later(() => {
    let all = [{ name: "ann", get size() { return 3; } }];
    handlers.forEach((f) => {
        try {
            print(f(all));
        } catch (e) {
            print("refused: " + e.message);
        }
    });
});
