procedure Main is _x : Integer := 0; begin null; end Main;
