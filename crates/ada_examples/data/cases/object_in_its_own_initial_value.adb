procedure Main is N : Integer := N; begin null; end Main;
