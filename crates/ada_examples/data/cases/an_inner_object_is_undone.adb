with Ada.Finalization; with Ada.Text_IO; with Ada.Unchecked_Deallocation;
procedure Main is
   Unlucky : exception;
   type Cell is record Value : Integer := 2; end record;
   type Ref is access Cell;
   procedure Free is new Ada.Unchecked_Deallocation (Cell, Ref);
   type Box is new Ada.Finalization.Limited_Controlled with record Item : Ref; end record;
   overriding procedure Initialize (Object : in out Box);
   overriding procedure Finalize (Object : in out Box);
   type Trap is new Ada.Finalization.Limited_Controlled with record Sprung : Integer := 0; end record;
   overriding procedure Initialize (Object : in out Trap);
   type Pair is record First : Box; Second : Trap; end record;
   type Pair_Link is access Pair;
   procedure Free_Pair is new Ada.Unchecked_Deallocation (Pair, Pair_Link);
   type Shop is new Ada.Finalization.Limited_Controlled with record Stock : Pair_Link; Spare : Ref; end record;
   overriding procedure Initialize (Object : in out Shop);
   overriding procedure Finalize (Object : in out Shop);
   overriding procedure Initialize (Object : in out Box) is
   begin
      Object.Item := new Cell;
   end Initialize;
   overriding procedure Finalize (Object : in out Box) is
   begin
      Free (Object.Item);
      Ada.Text_IO.Put_Line ("no box");
   end Finalize;
   overriding procedure Initialize (Object : in out Trap) is
   begin
      Object.Sprung := 1;
      raise Unlucky;
   end Initialize;
   overriding procedure Initialize (Object : in out Shop) is
   begin
      Object.Spare := new Cell;
      Object.Stock := new Pair;
   exception
      when Unlucky =>
         Ada.Text_IO.Put_Line ("unlucky");
         Ada.Text_IO.Put_Line (Integer'Image (Object.Spare.Value));
   end Initialize;
   overriding procedure Finalize (Object : in out Shop) is
   begin
      Free_Pair (Object.Stock);
      Free (Object.Spare);
   end Finalize;
   S : Shop;
begin
   if S.Stock = null then
      Ada.Text_IO.Put_Line ("no stock");
   end if;
end Main;
