desk.register((rs) => rs[0].name + rs[0].size);
desk.register((rs) => { throw new RangeError("no " + rs.length); });
