// A ledger that others may read and add to. The Proxy is all that they get of it.
let ledger = { opening: 100, secret: 42 };
let told = [];

function refuse(what) {
    return (target, key) => {
        told.push(what + " " + key);
        return false;
    };
}

desk.ledger = new Proxy(ledger, {
    get: (target, key) => key === "secret" ? undefined : target[key],
    has: (target, key) => key !== "secret" && key in target,
    ownKeys: target => Reflect.ownKeys(target).filter(key => key !== "secret"),
    set(target, key, value) {
        if (key in target) {
            told.push("change " + key);
            return false;
        }
        if (typeof value !== "number") throw new TypeError(key + " needs a number");
        target[key] = value;
        return true;
    },
    deleteProperty: refuse("delete"),
    defineProperty: refuse("define"),
});
later(() => print(told.join(", ")));

// A Proxy can't take back what its target has promised for good.
let liar = new Proxy(Object.freeze({ limit: 10 }), { get: () => 1000 });
print(liar.whatever);
try {
    liar.limit;
} catch (e) {
    print("a lie:", e instanceof TypeError);
}

// A Proxy that can be switched off.
let door = Proxy.revocable({ open: true }, {});
desk.door = door.proxy;
desk.shut = door.revoke;
