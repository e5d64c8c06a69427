procedure Main is N : constant := 1__2; begin null; end Main;
