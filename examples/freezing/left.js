// What is frozen stays as it is, for good; what it holds is another matter.
let rates = Object.freeze({ euro: 100, pound: 117, more: { yen: 1 } });
print(Object.isFrozen(rates), Object.isFrozen(rates.more));

// What is sealed keeps its keys, and can be written.
let list = Object.seal([3, 1, 2]);
list[0] = 4;
try {
    list.push(5);
} catch (e) {
    print("sealed:", e instanceof TypeError, list.length);
}
print(list.join());

// One property can be fixed alone.
let account = { owner: "ann" };
Object.defineProperty(account, "number", { value: 7 });
try {
    account.number = 8;
} catch (e) {
    print("not writable:", e instanceof TypeError);
}
try {
    delete account.number;
} catch (e) {
    print("not configurable:", e instanceof TypeError);
}
account.owner = "bob";
print(account.owner, account.number);

desk.rates = rates;
desk.account = account;
