procedure Main is N : constant := 2147483647; begin null; end Main;
