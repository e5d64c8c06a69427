procedure Main is N : constant := 1E3; begin null; end Main;
