procedure Main is type T; type T is record V : Integer := 0; end record; begin null; end Main;
