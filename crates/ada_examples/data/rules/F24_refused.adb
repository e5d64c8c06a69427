procedure Main is N : Integer := 0; type T is record V : Integer := 0; end record; begin null; end Main;
