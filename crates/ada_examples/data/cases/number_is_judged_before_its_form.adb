procedure Main is N : constant := 2147483648__1; begin null; end Main;
