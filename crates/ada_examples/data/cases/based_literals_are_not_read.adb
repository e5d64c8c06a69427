procedure Main is N : constant := 16#FF#; begin null; end Main;
