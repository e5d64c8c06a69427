procedure Main is N : constant := 2147483648; begin null; end Main;
