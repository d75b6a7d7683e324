"""Units of random bodies in small worlds of classes, half of which are changed so that they may break a rule of types."""
from random_bodies import OBJECT, TEXT, method
from flow_bodies import LEAST, MOST, all_fixed, change, declared, may_throw, size
from typed_bodies import TypedMaker
from typed_changes import TYPE_CHANGES, TypeChanger, stops_javac
from typed_worlds import PRIMITIVES, SHADED, STATIC, World, own_fields

CONSTRUCTORS = [["Z"], ["J", "Z"], [OBJECT, "I"]]


def typed_unit(rng, number, count):
    """A unit in a world of its own, with so many random methods and constructors, half of which are changed."""
    thrown, callees = {}, {}
    world = World(rng, number, all_fixed(rng, f"C{number}", thrown))
    for one in world.signatures.values():
        thrown[one["name"]] = thrown.get(one["name"], []) + one["thrown"]
    methods = list(world.classes[world.own]["methods"])
    for at in range(count):
        maker = at >= count - len(CONSTRUCTORS)
        parameters = CONSTRUCTORS[at - count] if maker else [rng.choice(["I", "J", "Z", *PRIMITIVES, OBJECT, TEXT, *world.types]) for _ in range(rng.randrange(4))]
        result, static = "V" if maker else rng.choice(["I", "J", "Z", "V", "V", "B", "C", "[I", OBJECT, *world.types]), not maker and rng.random() < 0.6
        while True:
            body = TypedMaker(rng, world, dict(callees), not static).body(parameters, result)
            if LEAST <= size(body) <= MOST:
                break
        if maker:
            body = [("Construct", True, [("Int", at)]), *body[:MOST - 1]]
        made = {**method("<init>" if maker else f"t{at}", parameters, result, body, STATIC if static else 0), "thrown": declared(rng, may_throw(body, thrown)), "changes": []}
        if at % 2:
            changed = change(rng, world, made, TypeChanger, TYPE_CHANGES, 0)
            while stops_javac(changed["body"]):
                changed = change(rng, world, made, TypeChanger, TYPE_CHANGES, 0)
            made = changed
        methods.append(made)
        if not maker:
            thrown[made["name"]] = made["thrown"]
        if static and made["flags"] & STATIC and len(callees) < 3:
            callees[made["name"]] = parameters, result
    own = world.classes[world.own]
    unit = {**own, "fields": own_fields(world), "helper": "rethrow$0", "methods": methods, "world": world, "around": [SHADED, *(name for name in world.classes if name != world.own)]}
    world.classes[world.own] = unit
    return unit
