procedure Main is N : constant := 1.5; begin null; end Main;
