with Ada.Finalization; with Ada.Text_IO; with Ada.Unchecked_Deallocation;
procedure Main is
   type Cell is record Value : Integer := 3; end record;
   type Ref is access Cell;
   procedure Free is new Ada.Unchecked_Deallocation (Cell, Ref);
   type Note is new Ada.Finalization.Limited_Controlled with record Item : Ref; end record;
   overriding procedure Finalize (Object : in out Note);
   type Book;
   type Page;
   type Book_Link is access Book;
   type Page_Link is access Page;
   type Book is new Ada.Finalization.Limited_Controlled with record Item : Ref; First : Page_Link; end record;
   overriding procedure Finalize (Object : in out Book);
   type Page is new Ada.Finalization.Limited_Controlled with record Item : Ref; Back : Book_Link; end record;
   overriding procedure Finalize (Object : in out Page);
   overriding procedure Finalize (Object : in out Note) is
   begin
      Ada.Text_IO.Put_Line ("note");
      Free (Object.Item);
   end Finalize;
   procedure Close (Given : in out Ref) is
      Own : Note;
   begin
      Free (Given);
      Ada.Text_IO.Put_Line ("closed");
   end Close;
   overriding procedure Finalize (Object : in out Page) is
   begin
      Free (Object.Item);
      Ada.Text_IO.Put_Line ("page");
   end Finalize;
   overriding procedure Finalize (Object : in out Book) is
      Own : Ref;
   begin
      Own := Object.Item;
      Object.Item := null;
      Close (Own);
      if Object.First /= null then
         Ada.Text_IO.Put_Line ("with pages that are gone");
      end if;
   end Finalize;
   B : Book_Link := new Book;
begin
   B.Item := new Cell;
   B.First := new Page;
   B.First.Item := new Cell;
   B.First.Back := new Book;
   B.First.Back.First := new Page;
end Main;
