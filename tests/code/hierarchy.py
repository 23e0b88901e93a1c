"""How the classes of a program stand to one another, and how their members are found (JVMS SE 8 5.4.3, 5.4.5, 6.5)."""

from program import LIBRARY, OBJECT, Refused, innermost, type_named


class Program:
    """Classes by name, in the order of their files."""

    def __init__(self, classes):
        self.classes = {each.name: each for each in classes}
        self.known = {**LIBRARY, **self.classes}

    # Types

    def class_named(self, name):
        if name not in self.known:
            raise Refused("NoClassDefFoundError", "no such class")
        return self.known[name]

    def type_named(self, name):
        """The type of a class or of an array, whose innermost class must be there."""
        type = type_named(name)
        if innermost(type) is not None:
            self.class_named(innermost(type))
        return type

    def superclasses(self, name):
        """The class, its superclass, and so on up to java/lang/Object."""
        while name is not None:
            yield name
            name = self.known[name].superclass

    def is_subclass(self, name, above):
        """Whether a class or interface is another, or lies below it."""
        if name == above:
            return True
        own = self.known[name]
        return any(self.is_subclass(each, above) for each in [own.superclass, *own.interfaces] if each is not None)

    def is_subtype(self, type, above):
        """Of types as in descriptors (6.5 checkcast)."""
        if type == above:
            return True
        if type[0] == "[":
            return above == f"L{OBJECT};" or (above[0] == "[" and self.is_subtype(type[1:], above[1:]))
        return type[0] == above[0] == "L" and self.is_subclass(type[1:-1], above[1:-1])

    def takes_all(self, type):
        """Whether every reference fits a type, since its innermost class is an interface or isn't there."""
        name = innermost(type)
        return name is not None and (name not in self.known or self.known[name].is_interface)

    def superinterfaces(self, name):
        """Those of one class: each direct one behind its own, each once."""
        found = []
        for each in self.known[name].interfaces:
            found += [other for other in [*self.superinterfaces(each), each] if other not in found]
        return found

    def all_superinterfaces(self, name):
        """Those of a class, then those of its superclasses, each once."""
        return list(dict.fromkeys(each for one in self.superclasses(name) for each in self.superinterfaces(one)))

    def needs(self, name):
        """What is initialized before the class (5.5 step 7)."""
        own = self.classes[name]
        if own.is_interface:
            return []
        above = [own.superclass] if own.superclass in self.classes else []
        return above + [each for each in self.superinterfaces(name) if self.classes[each].has_default()]

    def instance_fields(self, name):
        """Those of an object of the class: the class that declares each, and the field."""
        found = [(each, one) for each in self.superclasses(name) for one in self.known[each].fields]
        return [(each, one) for each, one in found if not one.is_static]

    # Fields (5.4.3.2)

    def find_field(self, name, key):
        own = self.known[name]
        if own.field(key):
            return name, own.field(key)
        above = [*own.interfaces, own.superclass]
        return next(filter(None, (self.find_field(each, key) for each in above if each is not None)), None)

    def resolved_field(self, name, field_name, type, is_static):
        """The class that declares the field."""
        self.class_named(name)
        found = self.find_field(name, (field_name, type))
        if not found:
            raise Refused("NoSuchFieldError", "no such field")
        if found[1].is_static != is_static:
            raise Refused("IncompatibleClassChangeError", "instance field" if is_static else "static field")
        return found[0]

    # Methods (5.4.3.3, 5.4.3.4)

    def default_methods(self, name, key):
        """The maximally specific superinterface methods of a class that aren't abstract."""
        declared = {each: self.known[each].method(key) for each in self.all_superinterfaces(name)}
        declared = {each: method for each, method in declared.items() if method and method.is_inherited}
        below = lambda each, other: each != other and self.is_subclass(each, other)
        specific = [each for each in declared if not any(below(other, each) for other in declared)]
        return [(each, declared[each]) for each in specific if not declared[each].is_abstract]

    def find_method(self, name, key):
        lines = [name] if self.known[name].is_interface else self.superclasses(name)
        for each in lines:
            if self.known[each].method(key):
                return each, self.known[each].method(key)
        defaults = self.default_methods(name, key)
        if len(defaults) == 1:
            return defaults[0]
        for each in self.all_superinterfaces(name):
            method = self.known[each].method(key)
            if method and method.is_inherited:
                return each, method
        return None

    def resolved_method(self, word, name, key):
        """The class that declares the method, and the method."""
        own = self.class_named(name)
        if word == "invokevirtual" and own.is_interface:
            raise Refused("IncompatibleClassChangeError", "names an interface")
        if word == "invokeinterface" and not own.is_interface:
            raise Refused("IncompatibleClassChangeError", "names a class")
        found = self.find_method(name, key)
        if not found:
            raise Refused("NoSuchMethodError", "no such method")
        owner, method = found
        if word == "invokespecial" and key[0] == "<init>" and owner != name:
            raise Refused("NoSuchMethodError", "<init> of another class")
        if method.is_static != (word == "invokestatic"):
            raise Refused("IncompatibleClassChangeError", "static method" if method.is_static else "instance method")
        if word == "invokeinterface" and method.is_private:
            raise Refused("IncompatibleClassChangeError", "private method")
        return found

    # Selection (6.5 invokevirtual, invokeinterface, invokespecial)

    def selected_method(self, name, key, with_private=False):
        """The class that declares the method that runs, looked for from this class on, and the method."""
        for each in self.superclasses(name):
            method = self.known[each].method(key)
            if method and not method.is_static and (with_private or not method.is_private):
                return self.run(each, method)
        defaults = self.default_methods(name, key)
        if len(defaults) > 1:
            raise Refused("IncompatibleClassChangeError", "several selected")
        if not defaults:
            raise Refused("AbstractMethodError", "none selected")
        return defaults[0]

    def run(self, owner, method):
        if method.is_abstract:
            raise Refused("AbstractMethodError", "abstract method")
        return owner, method

    def special_start(self, current, name):
        """Where invokespecial in the code of one class looks for the method of a named class."""
        above = self.known[current].superclass
        return above if above is not None and name in self.superclasses(above) else name
