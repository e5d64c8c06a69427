procedure Main is type T; begin null; end Main;
