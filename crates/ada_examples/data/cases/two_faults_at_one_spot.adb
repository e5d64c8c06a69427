procedure Main is type Main is access Nothing; begin null; end Main;
